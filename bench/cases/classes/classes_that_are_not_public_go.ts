class H extends f() { x = f(); } export class C { x: number; } export class D { m(a) {} }
