export function f(): void; export function f(x, y) {}
