export namespace N { export function f(a: string): void; export function f(a) { return f(); } }
