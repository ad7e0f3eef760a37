import * as self from "./mod.ts";
import type { a as again } from "./mod";
export const a: number = 1;
export const b: typeof self.a = 1;
export const c: typeof again = 1;
export type D = import("./mod.ts").E;
export interface E { x: 1 }
export * as all from "./mod.ts";
export { self };
