function f() {} f.c = f();
