export class C { set x(v: number) { return 1; } }
