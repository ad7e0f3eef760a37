// Each form once that TypeScript 4.8 does not read: of 4.9, 5.0, 5.2, 5.3, 5.6 and 5.9.
import a from "./a.json" with { type: "json" }; import defer * as b from "./b"; import { "c d" as e } from "./c"; import type f from "./f" with { "resolution-mode": "import" };
export type * from "./g"; export type * as h from "./h"; export { "c d" as "i j" } from "./c"; export * as "k l" from "./k"; export { a as "m n" }; export { o } from "./o" with { p: "q" };
const r = { s: 1 satisfies number } satisfies object as T, u = <const V,>(w: V): V => w, x = ((y satisfies Y)!) satisfies Z;
class A1<const B1> { accessor a1 = 1; static accessor b1: c1 = 2; private accessor d1; accessor #e1 = 1; @f1 accessor g1: h1; accessor "i1" = 3; accessor [j1.k1]: l1; override accessor m1 = 1; m<const N1>(n: N1) {} }
abstract class O1 { abstract accessor p1: q1; protected abstract accessor r1: s1; } interface T1 { u1<const V1>(w: V1): V1; } type W1 = <const X1>(y: X1) => X1;
using aa = bb(); await using cc = dd(), ee = ff();
async function gg() { using hh = ii, jj = kk; await using ll = mm; for (using nn of oo) ; for (await using pp of qq) {} for await (using rr of ss) {} import.defer("./b"); import("./b", { with: { type: "json" } }); }
