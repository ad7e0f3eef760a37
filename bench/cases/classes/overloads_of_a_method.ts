export class C { m(a: string): void; m(a: number): void; m(a, ...b) { return a; } }
