export * from "./mod";
