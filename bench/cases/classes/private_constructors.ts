export class C extends B { private constructor(a); private constructor(a, readonly b) { super(f); } private constructor(c, public d) {} }
