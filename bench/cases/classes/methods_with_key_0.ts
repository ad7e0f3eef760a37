export class C { m(a: number): number { return 1; } public m(a: number): number { return 1; } protected m(a: number): number { return 1; } }
