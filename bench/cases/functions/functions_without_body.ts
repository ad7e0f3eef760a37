export function f(a: string); export function f(a: number): void;
