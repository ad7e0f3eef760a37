export const t = `t`;
