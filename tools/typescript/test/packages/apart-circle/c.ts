export * from "./b.ts";
export const shown = 1;
