export * from "./a.ts";
export * from "./c.ts";
