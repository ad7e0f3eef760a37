import { N } from "./n.ts";
export let y: N.X.Y;
