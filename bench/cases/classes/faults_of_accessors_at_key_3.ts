export class C { accessor 2n; accessor 2n = [1]; }
