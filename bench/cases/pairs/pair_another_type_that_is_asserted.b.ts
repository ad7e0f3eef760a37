export const v = [1 as string];
