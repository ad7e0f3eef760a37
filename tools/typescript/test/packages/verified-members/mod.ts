export class A {
  readonly [Symbol.toStringTag] = "A";
  readonly "a-b" = 1;
  static readonly "c-d" = "x";
  readonly 1 = true;
}
export const o = { "a-b": 1, [Symbol.toStringTag]: "A" };
export interface B { readonly "a-b": 1 }
const start = 1;
export class C { count = start; other: number = 1; more = { deep: start }; }
export interface D { e: C }
export let count = start;
export type Count = typeof count;
export type Keys = { [K in "a"]: typeof count };
