export interface A { public m(): void; }
