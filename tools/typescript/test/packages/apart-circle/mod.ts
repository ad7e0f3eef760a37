export { shown } from "./a.ts";
