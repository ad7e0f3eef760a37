export {};
export const await: number = 1;
