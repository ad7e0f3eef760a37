import { type A, b, type C as D } from "@x/y";
