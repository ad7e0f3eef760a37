import { a, b } from "@x/y"; export { c, d }; export { e } from "@x/y";
