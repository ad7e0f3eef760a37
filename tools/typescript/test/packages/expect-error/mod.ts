// @ts-expect-error there is none
import { Gone } from "./gone.ts";
// @ts-expect-error the value is wrong
export const a: number = "x";
/** Doc. */
// @ts-expect-error the body is wrong
export function f(): number { return "x"; }
/* @ts-expect-error the value is wrong */
export let c: number = "x";
/** A doc.
 * @ts-expect-error the value is wrong */
export const d: number = "x";
// See @ts-expect-error in the handbook.
export const e: number = 1;
export class C {
  // @ts-expect-error the value is wrong
  a: number = "x";
}
export interface I {
  // @ts-expect-error no type of this name is there
  a: NotThere;
}
// @ts-ignore
export const b: number = "x";
export type T = Gone;
