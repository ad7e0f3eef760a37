/** Each form of a type once. */
export type A<T> = any | unknown | number | object | boolean | bigint | string | symbol | void | undefined | null | never | this;
type B = | C; type D = & E; type F = (G | H)[] & I; type J = K.L.M<N, O>; type P = typeof q | typeof r.s<T> | typeof import("t") | typeof this.u;
type V = import("w") | import("x").Y.Z<A> ; type B1 = { a: 1; b?(): 2; readonly [c: string]: 3, } | {}; type C1 = [a: 1, b?: 2, ...c: 3[]] | [1, 2?, ...3[]] | readonly 4[] | [];
type D1 = (a: 1, b?: 2, ...c: 3) => 4; type E1 = new <T>(a: T) => T; type F1 = abstract new () => void; type G1 = ((a) => b) | (({ a, b: [c] }: d) => e);
type H1 = I1 extends infer J1 extends K1 ? J1 : L1 extends [infer M1, ...infer N1] ? N1 : never; type O1 = keyof P1 | unique symbol | Q1["r"][number];
type S1 = { readonly [T1 in U1 as `a${T1}b`]?: V1 } | { -readonly [W1 in X1]-?: Y1 } | { +readonly [Z1 in A2]+?: B2 } | { [C2 in D2] };
type E2 = "a" | 'b' | 1 | -1 | 1n | -1n | true | `c` | `d${E}f${G extends H ? I : J}`; type F2 = (a: any) => a is string; type G2 = (this: X) => this is Y; type H2 = (a: any) => asserts a; type I2 = asserts;
function f<const_, in_>(a: (b: string) => void, string: number): string {} let x: A<B<C<D>>> = 1;
type Long = { first: string; second: number; third: boolean; fourth: Array<Map<string, Set<number>>>; fifth(): void } | "one long text" | "another long text";
