export * from "./a"; export { a } from "./a"; export * from "./b"; export * from "./b";
