export namespace A.B { export const a = 1; export function b() { throw 1; } }
