export namespace N { export function f(p) { throw 1; } class C {} export const x = f(); }
