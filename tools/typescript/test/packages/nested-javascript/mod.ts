export { helper } from "./helper.js";
