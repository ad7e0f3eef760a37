export class C { readonly x = 2; }
