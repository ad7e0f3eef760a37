function f() {} function g() {} g.a = 1; f.a = 1; g.b = 1; f.b = 1;
