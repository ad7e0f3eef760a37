export interface A { set a(value: number): string; }
