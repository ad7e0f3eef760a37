export function f(a: number = 1): string { return g(a); } function g(x: number) { return "" + x; }
