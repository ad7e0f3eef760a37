export interface Point {
  x: number;
}
export class Circle {
  center: Point = { x: 1 };
}
export class Square {
  corner(): Corner {
    return { x: 1 };
  }
}
type Corner = Point;
export function area(of: Circle): number {
  return 1;
}
export function unused(): void {}
