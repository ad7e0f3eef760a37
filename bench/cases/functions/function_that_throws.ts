export function f() { throw 1; }
