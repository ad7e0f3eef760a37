export class C { a: number; accessor #x: number; }
