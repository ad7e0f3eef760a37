export const a = 1; export namespace N { export const b; } export function c(d) {}
