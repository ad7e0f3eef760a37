export class Circle {
  constructor(public radius) {}
  area() {
    return 3 * this.radius;
  }
  private cached = new Map();
}
export const circles = [new Circle(1)].map((it) => it.area());
