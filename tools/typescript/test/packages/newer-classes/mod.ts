function dec(..._a: unknown[]): never {
  throw 1;
}
export class Cell {
  accessor value = 1;
  static accessor count: number = 2;
  private accessor hidden = "a";
  accessor #hash = 1;
  @dec accessor marked: string = "x";
  accessor "quoted" = 3;
  accessor [Symbol.iterator] = 3 as number;
  protected accessor inner: Map<string, number> = new Map();
  each<const T extends readonly unknown[]>(items: T): T {
    using handle = open();
    for (using each of handles()) each[Symbol.dispose]();
    return items;
  }
}
export abstract class Shape {
  abstract accessor name: string;
}
using handle = open();
function open(): Disposable {
  return {} as never;
}
function* handles(): Iterable<Disposable> {}
