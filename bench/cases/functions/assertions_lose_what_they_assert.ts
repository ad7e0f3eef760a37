export const r = [1 as number, Object.freeze("x")];
