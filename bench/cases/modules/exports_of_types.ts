export type { A }; export type { A } from "@x/y"; export { type B, c, type D as E };
