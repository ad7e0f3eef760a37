export const o = [2] as const;
