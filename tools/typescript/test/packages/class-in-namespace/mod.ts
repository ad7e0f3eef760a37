import { N } from "./n.ts";
export let x: N.X;
