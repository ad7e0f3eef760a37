import { b } from "./b"; export const x = 1; export { a } from "./a"; export { x }; import type { C, d } from "./c"; import "./e"; export * from "@x/y";
