import "./augment.ts";
export type { Options } from "./options.ts";
