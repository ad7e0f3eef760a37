namespace A.B.C.D.E { export const a = 1; export function b() { throw 1; } }
