export namespace N {
  export namespace X {
    export interface Y {
      a: number;
    }
  }
}
