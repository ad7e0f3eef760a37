export const o = { a: 2 };
