import data from "./data.json" with { type: "json" };
import defer * as later from "./names.ts";
import { "two words" as words } from "./names.ts";
export type * from "./types.ts";
export type * as types from "./types.ts";
export { "two words" as "three words" } from "./names.ts";
export * as "all of it" from "./names.ts";
export const shown: typeof later.plain = words;
export { data };
export function load(): void {
  import.defer("./names.ts");
}
