await using x = f();
