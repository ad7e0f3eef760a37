export class C { 1: number; public 1: number; protected 1: number; 1 = [1]; readonly 1 = 1; }
