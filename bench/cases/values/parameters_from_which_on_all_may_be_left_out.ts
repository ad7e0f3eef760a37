export function f(a: string, b?: string, c = 1) {}
