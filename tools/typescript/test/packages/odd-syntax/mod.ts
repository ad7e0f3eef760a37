declare const x: number;
declare function tag<T>(strings: TemplateStringsArray): new () => T;
export const made: object = new tag<string>
`x`;
export const shifted: number = (x as typeof x) << 1;
export const also: number = x as typeof x << 2;
export const ͺx: number = 1;
export const ำx: number = 1;
export const x゛: number = 1;
export function loops(of: number[][], a: number[]) {
  for (let of of a) of;
  for (let of in a) of;
  for (let of = 1; of < 2; of++) of;
  for (let [b] of of) b;
}
export class Ordered {
  public declare a: number;
  static static: number;
  readonly readonly: number = 1;
  declare declare: number;
  async async(): Promise<void> {}
  private constructor(readonly readonly: string, declare: number, abstract?: string) {}
}
