using x = f(), y = f(); let a = 1; f();
