declare namespace N { namespace M { namespace L { export const a = f(); export function g(p) { return 1; } } } }
