export namespace Outer {
  export interface Inner {
    a: number;
  }
  export interface Shown {
    b: number;
  }
  export interface Unused {
    c: number;
  }
}
