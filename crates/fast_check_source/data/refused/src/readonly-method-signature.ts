export interface A { readonly m(): void; }
