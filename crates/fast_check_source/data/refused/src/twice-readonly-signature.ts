export interface A { readonly readonly a: number; }
