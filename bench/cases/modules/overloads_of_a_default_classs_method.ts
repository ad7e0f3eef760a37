export default class C { m(a: string): void; m(a) { return 1; } }
