export * from "../b";
