namespace N { declare namespace M { export const a = f(); } export const b = f(); }
