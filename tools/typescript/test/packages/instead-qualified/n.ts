import { Other } from "./other.ts";
export class N {
  other?: Other;
}
export interface Part {
  a: number;
}
