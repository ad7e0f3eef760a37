import { Branch } from "./mod.ts";
export * from "./mod.ts";
export class Leaf {
  parent: Branch | null = null;
}
