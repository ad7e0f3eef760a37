const mark: unique symbol = Symbol();
// Implementations behind overloads go, whatever the names are.
export class A {
  ["quoted"](a: string): void;
  ["quoted"](a: number): void;
  ["quoted"](a: unknown): void {}
  1(a: string): void;
  1(a: number): void;
  1(a: unknown): void {}
  "a-b"(a: string): void;
  "a-b"(a: number): void;
  "a-b"(a: unknown): void {}
  [mark](a: string): void;
  [mark](a: number): void;
  [mark](a: unknown): void {}
  static [mark](a: string): void;
  static [mark](a: number): void;
  static [mark](a: unknown): void {}
  [Symbol.iterator](a?: string): Iterator<string>;
  [Symbol.iterator](a: number): Iterator<string>;
  [Symbol.iterator](a: unknown): Iterator<string> { return [][Symbol.iterator](); }
  mixed(a: string): void;
  "mixed"(a: number): void;
  ["mixed"](a: unknown): void {}
}
// Members have their values, of other declarations of the enum too.
export enum Merged { A = 1 }
export enum Merged { B = A, C = A | 4, D = Merged.A }
export enum Numbers { A = NaN, B = Infinity, C = -Infinity, D = 1 / 0, E = 0 / 0, F = -1 }
export enum Texts { A = `a`, B = "b" + "c" }
export const enum Constant { A = `x` }
export const enum Shifted { A = 1 << 3 }
export const enum More { A = 1 }
export const enum More { B = A + 1, C = More.A }
export namespace N { export enum Merged { A = 2 } }
export namespace N { export enum Merged { B = A + 1 } }
