import { a } from "@x/y";
