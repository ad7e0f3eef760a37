export class C { accessor 1; accessor 1 = [1]; }
