export const v = [new g(1, 2)];
