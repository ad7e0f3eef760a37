function f() {} x = function () { throw 1; }; f.a = function () { throw 1; }; f.c = f();
