export function f(b: object): void { for (var a = 1 in b) a; }
