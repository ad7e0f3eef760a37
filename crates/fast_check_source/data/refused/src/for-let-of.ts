export function f(b: number[]): void { for (let of b) b; }
