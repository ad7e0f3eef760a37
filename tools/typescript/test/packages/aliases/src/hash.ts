export interface Hash { code(): number }
export function unasked() { return Math.max(1); }
