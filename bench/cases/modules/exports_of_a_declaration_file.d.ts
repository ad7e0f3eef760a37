export { a }; export { b } from "@x/y";
