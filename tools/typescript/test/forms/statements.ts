// Each form of a statement and of a declaration once.
import a, * as b from "./b"; import { c, type d as e, default as f } from "./c"; import type { g } from "./d"; import {} from "./e"; import "./f";
import json from "./g.json" assert { type: "json" };
import h = N.M; import i = require("i"); import type j = N; export import k = N;
export { l, type m as n, o as default } from "./h"; export { p }; export {}; export * from "./i"; export * as q from "./j"; export type { r } from "./k";
@dec @dec.a(1) export abstract class S<in out T extends U = V> extends W.X<T> implements Y {
  static { a; } ; #x = 1; #y?: string; static #z() {}
  declare a: string; private readonly b?: number = 1; static override c!: d; "e" = 1; 1 = 2; [f.g] = 3; @h i; readonly [j: string]: k; static [l: number]: m;
  constructor(); constructor(private n: o, readonly p = 1, @q r?: s, public override t?: u) { super(n, ...p); }
  abstract v(): w; get x(): y { return 1 } set x(z) {} async *a1<T>(this: T, { b1 = 2, c1: [d1], ...e1 }: F1 = {}, [, g1]: h1): i1 {} j1?(): k1; protected static l1() {}
}
export default class extends A {} 
declare class M1 { n1; o1(): void; private constructor(); }
export declare function p1(): void; function q1(): void; function q1(r1?: any) {}
export async function* s1() { for await (const t1 of u1) {} for (const v1 in w1) continue; for (let x1 = 0, y1; x1 < 1; x1++) break; for (;;) ; }
interface Z1<T> extends A2, B2.C2<T> { (): d2; new (e2?: f2): g2; h2: i2; readonly j2?: k2; l2?<T>(m2: T): n2; "o2": 1; 3: 4; [p2.q2]: r2; [s2: string]: t2; get u2(): v2; set u2(w2); }
declare namespace A3.B3.C3 { const d3: e3; export { d3 as f3 }; } module G3 { export const h3 = 1; namespace I3 {} } declare module "j3" { export = k3; } declare module "l3";
declare global { interface M3 {} } const enum N3 { O3, P3 = 1, "q-3" = O3 | P3 } enum R3 {} declare enum S3 { T3 }
var u3, v3 = 1; let w3!: x3; const { y3, ...z3 } = a4, [b4] = c4; declare const d4: e4; declare var f4;
if (a) b; else if (c) { d } else e; switch (f) { case 1: g; h; default: { let i } } try { j } catch { k } finally { l } try {} catch ({ m }) {} try {} finally {}
while (n) o; do p; while (q); with (r) s; t: { break t; } u: for (;;) continue u; debugger; ; { ; } throw v; () => { return; return w; };
export = x; export as namespace y;
