export const f = () => { throw 1; };
