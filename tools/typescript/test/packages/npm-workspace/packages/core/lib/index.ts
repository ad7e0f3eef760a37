export * from "./shapes/shape.mjs";
export function make() { return Math.max(1); }
