export function f(): void; export function f(x) { return 1; }
