import type { Part } from "./n.ts";
export let part: Part;
