export function f(b: number[]): void { for (let a = 1 of b) a; }
