export class C { private m(a: string): void {} }
