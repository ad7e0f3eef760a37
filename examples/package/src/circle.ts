import { distance, type Point, type Shape } from "./shape.ts";
import { factor, type Unit } from "./units.ts";

/** A circle. */
export class Circle implements Shape {
  #area = -1;

  constructor(readonly center: Point, private radius: number) {}

  area(unit: Unit = "m"): number {
    if (this.#area < 0) this.#area = Math.PI * this.radius ** 2;
    return this.#area * factor(unit) ** 2;
  }

  /** Whether a place lies inside. */
  has(point: Point) {
    return distance(this.center, point) <= this.radius;
  }
}
