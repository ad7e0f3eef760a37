import sheet from "./sheet.css";
export { sheet };
export class Named {
  "constructor"(public value: string) {}
}
export class Heir extends Named {
  'constructor'(value: string, readonly size: number) {
    super(value);
  }
  static {
    await <string>"a";
    await
    /a/.test("a");
  }
}
export const text = await <string>"a";
export const number: number = await -1;
export const sum = await +1;
export const matched: boolean = await /a</.test("a");
export const later: string = await
  f();
export const named = { await: 1 };
declare function f(): Promise<string>;
export const made: object = new Tagged<string>
`x`;
export const shifted: number = (0 as typeof x) << 1 | (0 as unknown as typeof x << 2);
declare const x: number;
declare class Tagged<T> {
  constructor(...values: T[]);
}
declare function Tagged<T>(strings: TemplateStringsArray): new () => T;
export type Attributed = import("./other.ts", { with: { "resolution-mode": "import" } }).Other<1>;
export type Waits = (await: boolean, ...rest: unknown[]) => void;
export interface WaitsToo {
  await(await: boolean): void;
  new (await: boolean): WaitsToo;
  set value(await: boolean);
}
export const ͺx: number = 1;
export const ำx: number = 1;
export const x゛: number = 1;
export function loops(of: number[][], a: number[]): void {
  for (let of of a) of;
  for (let of in a) of;
  for (let of = 1; of < 2; of++) of;
  for (let of; ; ) break;
  for (let [b] of of) b;
}
export class Ordered {
  public declare a: number;
  static readonly b: number = 1;
  static static: number;
  readonly readonly: number = 1;
  declare declare: number;
  async async(): Promise<void> {}
  private constructor(readonly readonly: string, declare: number, abstract?: string) {}
}
