export class A { declare get a(): number { return 1; } }
