export const a = `t`;
