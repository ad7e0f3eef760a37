import { type Shape, side } from "./shapes.js";
/** What is kept. */
export const shapes: Shape[] = [{ area() { return side ** 2; } }];
const hidden = side;
export { side } from "./shapes";
