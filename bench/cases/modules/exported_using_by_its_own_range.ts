export using x = f(), y = f();
