export const o = { a: 1 };
