export class C { accessor m; accessor m = [1]; }
