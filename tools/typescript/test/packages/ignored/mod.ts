// fast-check-ignore missing-explicit-return-type -- generated code calls this alone
export function area(width: number) {
  return width * width;
}
/** A counter. */
// fast-check-ignore missing-explicit-type, missing-explicit-return-type
export class Counter {
  start = Math.random();
  next() {
    return this.start + 1;
  }
}
// fast-check-ignore missing-explicit-type
export function told() {
  return Math.random();
}
