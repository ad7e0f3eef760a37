// A result in parentheses that begins with a bracket is no parameter list of a function type where it is no pattern.
export const optional = (a: string): ({ a?: string }) => ({ a });
export const union = (a: string): ({ a: string | number }) => ({ a });
export const semicolons = (a: string): ({ a: string; b: number }) => ({ a, b: 1 });
export const readonly = (a: string): ({ readonly a: string }) => ({ a });
export const method = (a: string): ({ a(): string }) => ({ a: () => a });
export const mapped = (a: string): ({ -readonly [K in "a"]: string }) => ({ a });
export const tuple = (a: string): ([string | number]) => [a];
// The same in other places, and patterns beside them, which do begin parameters.
export type Listed = (({ a?: string }) | string)[];
export type Keyed = (a: string) => ({ [key: string]: number });
export type Pattern = ({ a, b: [c] }: { a: string; b: number[] }) => void;
export type Pair = ([a, , ...b]: string[]) => ([string, number?]);
export function inner(a: ({ b?: string }), [c]: ([string | number])): ({ b?: string }) | undefined { return c ? a : undefined; }
export class Holder { readonly held: ({ a?: string }) = {}; take = (a: string): ({ a?: string }) => ({ a }); }
