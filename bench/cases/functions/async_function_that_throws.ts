export async function f() { throw 1; }
