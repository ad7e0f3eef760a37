export class C { get x(): number { return 1; } set x(v: number) { throw 1; } }
