export * from "./behind.ts";
