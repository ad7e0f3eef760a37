export const no = Math.max(4);
