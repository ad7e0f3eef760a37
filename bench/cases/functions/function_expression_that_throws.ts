export const e = function () { throw 1; };
