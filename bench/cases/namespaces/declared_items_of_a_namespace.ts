namespace N { declare let a = f(); export const b = 1; }
