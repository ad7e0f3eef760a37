export * from "../../b/c";
