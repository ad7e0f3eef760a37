import { a, b } from "@x/y";
