export function two() { return Math.max(2); }
