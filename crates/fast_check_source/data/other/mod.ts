export function untold() { return Math.max(1, 2); }
export type Told = "told";
