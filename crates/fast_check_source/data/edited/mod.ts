export function written(): number { return Math.random(); }
