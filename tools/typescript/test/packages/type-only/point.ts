export type Point = { x: number };
