// Values that a skeleton leaves out, in each pair a short one and a long one: the lines are the same.
export const a: number = sum(1), b: number = sum(2);
export const c: number = sum(1000000, 2000000, 3000000, 4000000, 5000000, 6000000, 7000000), d: number = sum(2);
export function short(point: { x: number } = { x: 1 }, count: number = sum(1)): void {}
export function long(point: { x: number } = { x: sum(1000000, 2000000, 3000000, 4000000) }, count: number = sum(1000000, 2000000, 3000000)): void {}
export const arrow = (point: { x: number } = { x: 1 }, count: number = sum(1)): void => {};
export const longArrow = (point: { x: number } = { x: sum(1000000, 2000000, 3000000, 4000000) }, count: number = sum(1000000, 2000000)): void => {};
export class Short {
  constructor(private point: { x: number } = { x: 1 }, count: number = sum(1)) {}
  move(point: { x: number } = { x: 1 }, count: number = sum(1)): void {}
}
export class Long {
  constructor(private point: { x: number } = { x: sum(1000000, 2000000, 3000000, 4000000) }, count: number = sum(1000000, 2000000, 3000000)) {}
  move(point: { x: number } = { x: sum(1000000, 2000000, 3000000, 4000000) }, count: number = sum(1000000, 2000000, 3000000)): void {}
}
// What is printed decides: these are wide in the source by blanks and comments alone.
export type Choice = /* the first of them */ "first" /* and the second */ | /* which is this one */ "second";
export type Pair = [
  first:        string,
  second:       number,
  third:        boolean,
];
export interface Options {
  point: {
    x:           number;
    y:           number;
    z:           number;
  };
}
// These are wide in the skeleton.
export const first: Map<string, number> = new Map(), second: Map<string, number> = new Map(), third: Set<string> = new Set();
export function wide(first: Map<string, number>, second: Map<string, number>, third: Set<string> = new Set(), fourth?: Set<string>): void {}
function sum(...values: number[]): number {
  return values.length;
}
