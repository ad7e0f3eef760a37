export function f(): void; export function f(y = f()): string {}
