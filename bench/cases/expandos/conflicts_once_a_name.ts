function f() {} f.a = { x: a, y: b, z: a };
