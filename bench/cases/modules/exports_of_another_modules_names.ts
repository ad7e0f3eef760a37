export { a, b as c } from "./x";
