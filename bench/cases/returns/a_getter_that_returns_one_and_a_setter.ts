export class C { get x() { return 1; } set x(v: number) { return 1; } }
