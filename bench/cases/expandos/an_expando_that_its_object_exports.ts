function f() {} f.a = f(); f.b = 1;
