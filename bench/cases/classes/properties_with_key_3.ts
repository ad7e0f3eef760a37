export class C { 2n: number; public 2n: number; protected 2n: number; 2n = [1]; readonly 2n = 1; }
