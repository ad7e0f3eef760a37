export * from "./ä b";
