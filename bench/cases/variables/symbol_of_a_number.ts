export const a = Symbol(1);
