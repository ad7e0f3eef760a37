export * from "./x"; export type * from "@x/y"; export * from "./d.json" with { type: "json" };
