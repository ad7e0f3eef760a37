export const o = [1] as const;
