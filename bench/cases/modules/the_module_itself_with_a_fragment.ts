export * from "./mod#a";
