export class C { readonly x: number = 1; }
