export class A { readonly m(): void {} }
