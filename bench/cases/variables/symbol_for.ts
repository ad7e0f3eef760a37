export const a = Symbol.for("x");
