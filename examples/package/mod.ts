/** Shapes and what can be asked of them. */
export * from "./src/shape.ts";
export { Circle } from "./src/circle.ts";
export type { Unit } from "./src/units.ts";
import { Circle } from "./src/circle.ts";

/** A circle around the origin. */
export function unitCircle(radius = 1): Circle {
  return new Circle({ x: 0, y: 0 }, radius);
}

/** The version of this package. */
export const version = "1.0.0";
