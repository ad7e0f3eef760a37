import { core, depth as deep, hidden as hide, make, other as another } from "@test/kit";
import { load } from "not-there";
export * from "./parts.ts";
export interface Hidden { hidden: true | boolean }

// By the name that the package exports, and by another one.
export const made = make(1);
export const depth = deep();
// As default.
export default core();
// Of a package that this one does not need.
export const other = another();
// Not exported, where another type has the name.
export const hidden = hide();
// A part is not known.
export function later() { return Promise.resolve(load()); }
