import { M, K } from "./b.ts";
export namespace N { export class C { private p: string = ""; m(): void {} } const hidden = 1; }
import A = N.Missing;
import B = N.C;
export type T1 = A;
export interface I1 { x: A; y: B; z: N.Gone }
export type T2 = B["p"];
export type T3 = N.C["p"];
export class D { f: M.Nope = null!; h: typeof K.s.t = ""; k(): typeof B.prototype.p { return ""; } }
export default class { v: N.Also = null!; }
export const w: typeof N.C.prototype.m.x = null!;
export interface J { p: typeof K.prototype.q }
export function f(a: N.Nowhere): void {}
