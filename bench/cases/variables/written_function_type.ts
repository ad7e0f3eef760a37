export const a: () => void = "x";
