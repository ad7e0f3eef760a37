import type { Unit } from "./units.ts";

/** A place in the plane. */
export interface Point {
  x: number;
  y: number;
}

/** What has an area. */
export interface Shape {
  /** The area, in squares of the unit. */
  area(unit?: Unit): number;
}

/** How far two places lie apart. */
export function distance(from: Point, to: Point): number {
  return Math.hypot(to.x - from.x, to.y - from.y);
}
