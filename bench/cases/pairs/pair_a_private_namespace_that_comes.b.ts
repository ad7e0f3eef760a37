namespace N { function f() {} } export const x: number = 1;
