export const a = [1] satisfies const;
