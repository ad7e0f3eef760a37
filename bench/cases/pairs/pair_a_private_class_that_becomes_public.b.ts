class H {} export const x: number = 1;
