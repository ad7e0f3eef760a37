export interface A { readonly get a(): number; }
