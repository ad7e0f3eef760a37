export const a = Symbol("x");
