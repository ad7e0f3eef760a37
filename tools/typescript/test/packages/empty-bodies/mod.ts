// Arrows and functions of which a return type is missing and the block is empty, in each place that one may stand in.
export const arrow = () => {};
export const asynchronous = async () => {};
export const expression = function () {};
export const parenthesised = (() => {});
export const object = { arrow: () => {}, named: function () {}, nested: { inner: () => {} } };
export const array = [() => {}, function () {}];
export const called = Object.freeze({ arrow: () => {} });
export let later = () => {};
export var old = () => {}, second = () => {};
export function declared() {}
export async function waiting() {}
export function withDefault(call = () => {}, { inner = () => {} } = {}) {}
export class Class {
  static shared = () => {};
  static {}
  own = () => {};
  #hidden = () => {};
  private secret = () => {};
  constructor(readonly property = () => {}, plain = () => {}) {}
  method() {}
  static staticMethod() {}
}
export namespace Space {
  export const arrow = () => {};
  export function inner() {}
  export namespace Empty {}
}
declared.property = () => {};
const hidden = () => {};
hidden();
