using x = f(), y = f();
