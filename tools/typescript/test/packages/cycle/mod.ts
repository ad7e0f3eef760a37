import { Leaf } from "./leaf.ts";
export class Branch {
  leaves: Leaf[] = [];
}
export * from "./leaf.ts";
