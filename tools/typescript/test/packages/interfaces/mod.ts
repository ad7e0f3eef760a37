export interface Point {
  readonly x: number;
  y?: number;
}
export interface Named<T = string> extends Point, Omit<Point, "x"> {
  name: T;
  (call: number): string;
  new (text: string): Point;
  method<U>(value: U): asserts value;
  get size(): number;
  set size(value: number);
  [key: string]: unknown;
}
interface Hidden {
  a: number;
}
interface Reached {
  b: number;
}
export interface User extends Reached {}
