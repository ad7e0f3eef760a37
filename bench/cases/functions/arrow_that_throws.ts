export const p = (a) => { throw 1; };
