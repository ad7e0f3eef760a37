export class C { accessor 1: number; public accessor 1: number; protected accessor 1: number; accessor 1 = 1; }
