function f() {} x = f(); f.a += f();
