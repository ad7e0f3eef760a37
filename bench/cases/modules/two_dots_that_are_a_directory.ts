export * from "..";
