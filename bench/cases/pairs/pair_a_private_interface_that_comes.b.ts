interface I { a: number; } export const x: number = 1;
