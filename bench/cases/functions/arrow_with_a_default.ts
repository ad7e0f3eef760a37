export const h = (a = 1) => a;
