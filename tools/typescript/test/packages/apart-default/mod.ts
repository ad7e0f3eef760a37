import * as names from "./names.ts";
export { names };
export type Standard = typeof names["default"];
