export default interface Shape {
  area: Area;
}
type Area = number;
export default class {
  size: Size = 1;
}
type Size = number;
