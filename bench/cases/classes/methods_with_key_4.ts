export class C { [k](a: number): number { return 1; } public [k](a: number): number { return 1; } protected [k](a: number): number { return 1; } }
