export class C { private m(): number { return 1; } }
