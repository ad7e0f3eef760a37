declare namespace N { export const a = f(); } export const b = f();
