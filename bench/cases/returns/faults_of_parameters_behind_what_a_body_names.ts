export function f(a, { c }) { return 1; } export const g = (b) => { return 1; };
