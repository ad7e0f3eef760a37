import Core, { type Inner, type Other } from "@test/inner";
export type { Inner as Depth } from "@test/inner";
export { Core };
export interface Made<T> { value: T }
interface Hidden { hidden: boolean }
export function make<T>(value: T): Made<T> { return { value }; }
export function depth(): Inner { return { depth: 1 }; }
export function core(): Core { return new Core(); }
export function other(): Other { return { depth: "" }; }
export function hidden(): Hidden { return { hidden: true }; }
