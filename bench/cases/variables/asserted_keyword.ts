export const a = x as number;
