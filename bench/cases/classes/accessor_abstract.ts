export class C { abstract accessor x: number; }
