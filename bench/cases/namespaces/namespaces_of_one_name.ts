export namespace N { export const a = 1; } export namespace N { export const b = 1; } export function N() {}
