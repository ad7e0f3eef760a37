import { type Item, make } from "@test/core";
import type { Extra } from "@test/core/extra";
export function list(size = 1): Item[] {
  return [make()];
}
export const extra: Extra = "extra";
