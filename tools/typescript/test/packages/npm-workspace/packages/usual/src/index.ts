import type { Shape } from "@test/core/shapes";
export type Shapes = Shape[];
