export class C { readonly x = 1; }
