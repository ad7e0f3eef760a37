export * from "./d/e/a";
