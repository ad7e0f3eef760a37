export type Inner = "inner";
