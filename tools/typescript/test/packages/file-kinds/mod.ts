export { a } from "./a.mts";
export { b } from "./b.cts";
export { View } from "./view.tsx";
export { typed } from "./typed.js";
export type { Data } from "./data.d.ts";
