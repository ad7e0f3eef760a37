import { Inner } from "./inner";
export declare class Outer {
  private hidden;
  inner: Inner;
}
declare function helper(): void;
export {};
