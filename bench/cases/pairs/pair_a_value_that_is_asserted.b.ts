export const v = [f() as number];
