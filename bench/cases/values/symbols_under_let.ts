export let s0 = Symbol("x"), s1 = Symbol.for("x"), s2 = Symbol();
