export class C { declare x: number = 1; }
