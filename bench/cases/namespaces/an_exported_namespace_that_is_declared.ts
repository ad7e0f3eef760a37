export declare namespace N { export const a = 1; export function b(p, q = 1) { return 1; } export namespace M { export const d = f(); export function e() { return f(); } } }
