export class C { accessor 2n: number; public accessor 2n: number; protected accessor 2n: number; accessor 2n = 1; }
