/** What this module is. */
import { makeShape, makeTaken, isShape, shapes } from "./shapes.ts";
interface Taken { another: 1 }
export type { Taken };
export function shape() { return makeShape(); }
export const taken = makeTaken();
export const all = shapes.map((it) => it);
export const first = x => shapes[x as number];
export const later = async x => shapes[x as number];
export class Shapes {
  list = shapes;
  #hidden = 1;
  get size() { return this.list.length + this.#hidden; }
  static from(count = shapes.length) { return new Shapes(); }
  each(call = (it = makeShape()) => it.area) { this.list.forEach(call); }
}
export const circle = circular();
function circular() { return circle; }
export const long = { a: makeShape(), b: [{ key: "a".length, more: new Map<string, Set<number>>() }], ["computed"]: 1 as const };
export function tooLong() {
  return {
    aNameThatIsLong1: "".length, aNameThatIsLong2: "".length, aNameThatIsLong3: "".length, aNameThatIsLong4: "".length, aNameThatIsLong5: "".length,
    aNameThatIsLong6: "".length, aNameThatIsLong7: "".length, aNameThatIsLong8: "".length, aNameThatIsLong9: "".length, aNameThatIsLong10: "".length,
    aNameThatIsLong16: "".length, aNameThatIsLong11: "".length, aNameThatIsLong12: "".length, aNameThatIsLong13: "".length, aNameThatIsLong14: "".length, aNameThatIsLong15: "".length,
  };
}
export function untyped(value) { return 1; }
export function classOf() { return class { area = 1; shape = makeShape(); }; }
export function classInItself() { return class Node { next = new Map<string, Node>(); }; }
