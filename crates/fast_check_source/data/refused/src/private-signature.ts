export interface A { private a: number; }
