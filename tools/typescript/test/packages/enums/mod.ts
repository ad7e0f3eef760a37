export enum Color {
  Red,
  Green = "green",
  Blue = Red + 1,
}
export const enum Level {
  Low = 1,
  High = Low << 1,
}
export declare enum Outer {
  A,
}
enum Hidden {
  X,
}
export type Red = Color.Red;
