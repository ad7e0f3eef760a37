export interface Shape { area(): number }
export const side: number = 2;
