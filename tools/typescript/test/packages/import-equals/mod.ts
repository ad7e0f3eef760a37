import { Outer } from "./outer.ts";
import Inner = Outer.Inner;
export import Shown = Outer.Shown;
export const inner: Inner = { a: 1 };
