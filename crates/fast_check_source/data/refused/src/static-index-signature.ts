export interface A { static [key: string]: number; }
