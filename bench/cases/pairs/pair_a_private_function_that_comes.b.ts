function p() {} export const x: number = 1;
