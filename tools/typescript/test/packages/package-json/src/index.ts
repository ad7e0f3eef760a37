export { value } from "./value.js";
export * from "./folder";
