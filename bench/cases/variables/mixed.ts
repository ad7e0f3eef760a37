export const a = 1, b = "b", c, d: unknown = null;
