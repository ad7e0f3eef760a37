export class A { readonly accessor a: number = 1; }
