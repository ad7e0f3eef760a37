export const a = Symbol();
