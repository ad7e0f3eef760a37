export function* a() { return; } export function* b() { return 1; } export async function* c() { throw 1; }
