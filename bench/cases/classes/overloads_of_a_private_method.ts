export class C { private m(a: string): void; private m(a) { return 1; } }
