export class C { accessor [k]: number; public accessor [k]: number; protected accessor [k]: number; accessor [k] = 1; }
