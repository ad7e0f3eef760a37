import standard, * as names from "./names.ts";
export { names, standard };
export type Standard = typeof standard;
