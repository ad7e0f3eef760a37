export const typed: number;
