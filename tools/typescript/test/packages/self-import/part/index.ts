import type * as self from ".";
import type { E } from "../mod.ts";
export const a: number = 1;
export const b: typeof self.a = 1;
export const e: E = { x: 1 };
