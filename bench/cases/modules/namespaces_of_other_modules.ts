export * as ns from "./x"; export * as "n s" from "@x/y"; export type * as t from "@x/y";
