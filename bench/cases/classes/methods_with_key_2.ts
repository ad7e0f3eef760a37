export class C { 1(a: number): number { return 1; } public 1(a: number): number { return 1; } protected 1(a: number): number { return 1; } }
