import { N } from "./n.ts";
export let part: N.Part;
