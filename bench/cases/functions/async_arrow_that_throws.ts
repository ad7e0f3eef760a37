export const f = async () => { throw 1; };
