import { Other } from "./other.ts";
export class N {
  other?: Other;
}
export namespace N {
  export interface Part {
    a: number;
  }
}
