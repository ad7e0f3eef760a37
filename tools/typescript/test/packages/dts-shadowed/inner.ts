export namespace N { export type Readonly<T> = T; export const frozen = Object.freeze({ a: 1 }); }
export const frozen = Object.freeze({ a: 1 });
