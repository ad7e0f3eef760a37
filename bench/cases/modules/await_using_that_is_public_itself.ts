await using x = f(), y = f();
