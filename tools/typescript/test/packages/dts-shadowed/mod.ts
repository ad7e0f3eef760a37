// The skeleton keeps the values; a declaration file has their types, by names of the language.
export type Readonly<T> = T;
export interface RegExp { own: true }
export const frozen = Object.freeze({ a: 1 });
export const patterns = { first: /a/ };
export const list = [/a/];
