import { N } from "./n.ts";
import A = N.X;
export let y: A.Y;
