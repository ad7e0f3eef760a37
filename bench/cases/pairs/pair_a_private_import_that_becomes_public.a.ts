import { a } from "@x/y"; export const x: number = 1;
