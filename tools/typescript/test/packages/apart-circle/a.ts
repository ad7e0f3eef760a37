export * from "./b.ts";
