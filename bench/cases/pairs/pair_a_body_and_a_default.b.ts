export function f(a: number = 2): string { const t = 1; return String(t); }
