import { Other } from "./other.ts";
export namespace N {
  export class X {
    other?: Other;
  }
  export namespace X {
    export interface Part {
      a: Other;
    }
  }
}
