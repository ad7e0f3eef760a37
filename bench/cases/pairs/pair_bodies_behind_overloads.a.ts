export function f(): void; export function f(x) { throw 1; }
