import { Root } from "./root.ts";
export class Base<T> extends Root.Inner {
  value?: T;
}
export interface Marked {
  mark: "a";
}
