export class C { #x = 1; private m(): void {} private m(a: number): void {} private constructor(); static {} }
