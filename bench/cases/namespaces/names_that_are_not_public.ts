export namespace A.B.C { export const a = 1; export function b() { throw 1; } }
