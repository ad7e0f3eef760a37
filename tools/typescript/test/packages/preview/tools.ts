import type { Point } from "./shapes.ts";
export const all: Point[] = [], some = all.map((it) => it.x);
