f.a = 1; function f() {}
