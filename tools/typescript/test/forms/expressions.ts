#!/usr/bin/env node
/* Each form of an expression once; the text makes no sense. */
import type { A } from "./a";
const texts = ["a", 'b\n', `c`, `d${1}e${`f${2}`}`, tag`g\u{41}${3}`, tag<A>`b`];
const numbers = [0b01, 0x1F, 1_000, 1., .5, 1e3, 10n, -1, +(-1), - -1, 1.0.toFixed(), 1 .toFixed()];
const others = [true, false, null, undefined, /a\/[/]b/giu, this, , void 0, typeof x, ...rest, ,];
const object = { a, "b": 1, 3: 2, [k]: 4, ...rest, get g() { return 1 }, set s(v) {}, async *m() { yield* y; yield; }, async n() { await z; } };
const functions = [function () {}, function named<T>(this: T, a?: T, ...b: T[]): asserts a is T {}, async function* () {}, () => {}, async a => a, <T,>(a: T): T => ({ a })];
const classes = [class {}, class B<T> extends (C, D)<T> implements E.F<T>, G {}];
a = b; a += b; a **= b; a ||= b; a &&= b; a ??= b; a >>>= b;
[a, , b = 1, ...c] = d; ({ a, b: c.d, e = 1, [f]: [g], ...h } = i);
a, b, (c, d);
a ? b : c ? d : e;
a?.b.c(1)?.[2]!.d?.(3); (a?.b).c; a!.b; a![0]; new A; new A(); new A.B<C>(1, ...d); new (a())(); super_.x;
a ?? b; (a || b) ?? c; a ** b; (-a) ** b; !a; ~a; a++; --a; delete a.b; a in b; #p in c; a instanceof b; a < b > c;
<A>b; <const>["b"]; a as B as C; a as const; f<A>(b); < <T>(a: T) => T>b;
(f<A>); import("x"); import.meta.url; function F() { new.target }
