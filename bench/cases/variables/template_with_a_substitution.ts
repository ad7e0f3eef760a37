export const a = `t${x}u`;
