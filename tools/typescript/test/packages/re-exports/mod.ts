export { Circle, area as areaOf } from "./shapes.ts";
export type { Point } from "./shapes.ts";
import { Square } from "./shapes.ts";
export { Square as default };
