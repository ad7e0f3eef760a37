import { a, b } from "./a";
