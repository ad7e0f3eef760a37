export const v = [f()];
