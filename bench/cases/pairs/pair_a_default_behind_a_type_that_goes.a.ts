export function f(a: number = 1) {}
