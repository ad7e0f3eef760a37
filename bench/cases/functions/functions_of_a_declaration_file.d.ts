export async function* f(a, b = f(), [c]) { return 1; } export function g(x) {}
