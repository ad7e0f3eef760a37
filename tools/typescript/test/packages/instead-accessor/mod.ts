export abstract class Shape {
  abstract get area(): number;
  abstract set area(value: number);
}
