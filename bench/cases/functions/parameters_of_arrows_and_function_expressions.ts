export const a = (a = 1, { b }: T, ...c: T) => a; export const g = function (a = 1, b: string, @d [a] = b) {};
