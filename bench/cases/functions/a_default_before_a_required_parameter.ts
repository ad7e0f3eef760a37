export function f(a = 1, b: string): void {}
