// Where a return type has to be written though the block is empty, or a type though the value is a function.
export const object = { arrow: () => {}, method() {}, get value() { return 1; }, nested: { inner: () => {} } };
export const made = new Set([() => {}]);
export const choice = Math.random() > 1 ? () => {} : () => {};
export function* generated() {}
export class Class {
  get value() { return () => {}; }
  set value(given) {}
}
