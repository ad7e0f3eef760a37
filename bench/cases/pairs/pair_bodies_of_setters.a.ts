export class C { set x(v: number) { f(); } }
