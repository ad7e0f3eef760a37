export const v = [f(1)];
