export class C { "a b"(a: number): number { return 1; } public "a b"(a: number): number { return 1; } protected "a b"(a: number): number { return 1; } }
