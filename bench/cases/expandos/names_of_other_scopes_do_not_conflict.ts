function f() {} f.c = a; f.d = c;
