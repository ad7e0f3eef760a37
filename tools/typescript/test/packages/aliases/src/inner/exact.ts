export function exact() { return Math.max(1); }
