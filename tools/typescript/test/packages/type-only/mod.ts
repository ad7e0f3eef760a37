import type { Point } from "./point.ts";
import type * as all from "./all.ts";
import { run } from "./run.ts";
export const point: Point = run();
export type Named = all.Named;
