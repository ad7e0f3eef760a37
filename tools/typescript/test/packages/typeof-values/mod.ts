declare function load(): any;
export const level: number | null = load();
export type Level = typeof level;
export const flag: boolean = load();
export type Flag = typeof flag;
export enum Color { Red, Green }
export const color: Color = load();
export type ColorType = typeof color;
export let current: string | undefined = load();
export type Current = typeof current;
export var state: Color = load();
export type State = typeof state;
export const member: Color.Red | null = load();
export type Member = typeof member;
type Alias = string | number;
export const alias: Alias = load();
export type OfAlias = typeof alias;
export const object: { a: number | null } = load();
export type OfObject = typeof object.a;
export class Holder {
  static part: number | null = load();
  own: "a" | "b" = load();
  readonly mark: boolean = load();
}
export type Part = typeof Holder.part;
export type Own = typeof Holder.prototype.own;
export namespace N {
  export const inner: boolean = load();
  export type Inner = typeof inner;
}
export type OfInner = typeof N.inner;
export function narrow(a: typeof level): typeof flag { return load(); }
export const value: () => typeof level = load();
export const plain: string = load();
export type Plain = typeof plain;
