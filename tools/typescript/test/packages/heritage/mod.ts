import { Base, type Marked } from "./base.ts";
export class Child extends Base<string> implements Marked {
  mark = "a" as const;
}
export interface Wide extends Base<number> {}
