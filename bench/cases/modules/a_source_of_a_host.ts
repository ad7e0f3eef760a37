export * from "../a";
