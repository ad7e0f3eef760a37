export const s = Symbol("x", "x"); export const i = import();
