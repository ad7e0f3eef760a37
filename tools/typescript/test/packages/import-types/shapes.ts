export interface Circle {
  radius: Radius;
}
type Radius = number;
export interface Unused {}
