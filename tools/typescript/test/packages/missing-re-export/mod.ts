export * from "./gone.ts";
export * as all from "./gone_too.ts";
export { a } from "./nowhere.ts";
import { b, type C } from "./absent.ts";
export { b };
import { hidden } from "./inside.ts";
export const d: typeof hidden = 1;
export * from "./part.ts";
