function f() {} f.a += 1; f["a"] = 1; a.b.c = 1; x = 1;
