export class C { 2n(a: number): number { return 1; } public 2n(a: number): number { return 1; } protected 2n(a: number): number { return 1; } }
