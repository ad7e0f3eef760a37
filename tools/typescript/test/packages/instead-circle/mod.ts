export { shown } from "./c.ts";
