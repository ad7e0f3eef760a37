export namespace Shapes {
  export interface Circle {
    radius: number;
  }
}
export function area(of: Shapes.Square): number {
  return 1;
}
