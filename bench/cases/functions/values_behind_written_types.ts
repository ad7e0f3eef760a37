export const a: string = f(); export const b: T = (x) => f(); export const c: "x";
