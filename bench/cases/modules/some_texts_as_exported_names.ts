export { a as "b c", "d e" as f, "g" as "h i" } from "@x/y";
