export const o = { list: [(a) => { throw 1; }] };
