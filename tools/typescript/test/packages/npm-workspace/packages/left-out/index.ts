export function untyped() { return Math.max(1); }
