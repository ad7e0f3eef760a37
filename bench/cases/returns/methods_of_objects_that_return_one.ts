export const o = { m() { return 1; } };
