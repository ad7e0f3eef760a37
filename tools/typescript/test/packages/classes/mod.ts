export interface Shape {
  area(): number;
}
export abstract class Base<T> {
  abstract name: string;
  protected abstract draw(): void;
  protected count = 0;
  static made = 0;
  readonly kind = "base";
  optional?: T;
  [key: `on${string}`]: unknown;
}
export class Circle extends Base<number> implements Shape {
  #radius = 1;
  private cache: Map<string, number> = new Map();
  name = "circle";
  static #count = 0;
  static {
    Circle.#count = 1;
  }
  constructor(radius: number, private label = "a", readonly id?: string) {
    super();
    this.#radius = radius;
  }
  area(): number {
    return this.#radius;
  }
  protected draw() {}
  private redraw(force: boolean) {
    return force;
  }
  get radius(): number {
    return this.#radius;
  }
  set radius(value: number) {
    this.#radius = value;
  }
  static of(radius: number): Circle {
    return new Circle(radius);
  }
  "quoted name"(): void {}
  [Symbol.iterator](): Iterator<number> {
    return [][Symbol.iterator]();
  }
}
