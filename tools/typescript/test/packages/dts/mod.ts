import { Level, base, type Options } from "./options.ts";
import * as every from "./options.ts";
export * from "./options.ts";

/** A shape. */
export abstract class Shape<T = number> {
  #area = 0;
  private cache: Map<string, T> = new Map();
  static count = 0;
  readonly corners = -4;
  level = Level.High;
  list = [1, 2];
  /** What is done at each corner. */
  each = (at: number, name = "a"): void => console.log(at, name);
  constructor(public name: string, protected options?: Options, ...more: T[]) {
    console.log(more);
  }
  /** The area. */
  get area(): number {
    return this.#area;
  }
  set area(value: number) {
    this.#area = value;
  }
  static make(name: string): Shape;
  static make(name: number): Shape;
  static make(name: any): any {
    return name;
  }
  abstract draw(): void;
  async load({ a, b }: { a: string; b: number }, [c] = [1] as number[]): Promise<void> {
    console.log(a, b, c);
  }
  override toString(): string {
    return this.name;
  }
}

export function twice(text: string): string;
export function twice(count: number): number;
export function twice(it: any): any {
  return it + it;
}
twice.limit = 3;

export function* numbers(from = 0, to: number): Generator<number> {
  yield from + to;
}

export const isText = (it: unknown): it is string => typeof it === "string";
export const same = <T>(it: T) => it;
export const day = 24 * 60 * 60;
export let low = Level.Low, other = base, another = every.base;
export const high = Level.High, minus = -1n;
export const table = { [Symbol.iterator]: 1, "a-b": { c: [true, false] }, base, 3: /a/ };
export const fixed = { kinds: ["a", -1], level: Level.Low } as const;
export const picked = day > 3 ? "long" : null;
export const frozen = Object.freeze(["a"]);
export const _default = 1;
export default [base];

export namespace inner {
  const hidden: { a: string } = { a: "" };
  export const shown = hidden;
  export enum Bits { A = 1 << 2, B = A | 1, C = "x".length, D = Level.High, E = Bits.B * 2 }
  export namespace deep.er {
    export type It = typeof hidden;
    const left = hidden;
    export { left as right };
  }
}
export type Loaded = import("./options.ts").Options;
export const small = ["a", "b"], pair = ["c", 1] as const;
export const spread = ["z", ...small, ...pair];
