export class C { m: number; public m: number; protected m: number; m = [1]; readonly m = 1; }
