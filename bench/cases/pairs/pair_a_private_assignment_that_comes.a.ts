function f() {} f.a = 1;
