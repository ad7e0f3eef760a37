export class A { readonly readonly a: number = 1; }
