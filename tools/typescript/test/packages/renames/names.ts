export default interface Standard {
  a: number;
}
export const original = 1;
export type Shape = "round";
