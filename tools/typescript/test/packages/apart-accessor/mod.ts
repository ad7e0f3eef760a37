export abstract class Shape {
  abstract accessor area: number;
}
