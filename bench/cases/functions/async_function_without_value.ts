export async function f() { await g(); }
