export class C { accessor m: number; public accessor m: number; protected accessor m: number; accessor m = 1; }
