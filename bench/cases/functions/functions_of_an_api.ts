export function twice(n: number, log = false): number { if (log) f(n); return 2 * n; } export const api = { twice, half: (n = 1) => n as number };
