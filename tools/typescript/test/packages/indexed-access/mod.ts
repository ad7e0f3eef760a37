import { Config } from "./config.ts";
export type Depth = Config["depth"];
export type Deep = Config["nested"]["value"];
