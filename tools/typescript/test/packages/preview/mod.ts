import { make, type Made } from "./make.ts";
export * from "./shapes.ts";

export function made() {
  return make();
}
export const limit: number = 3;
export function kept(shape: Made): void {
  console.log(shape);
}
