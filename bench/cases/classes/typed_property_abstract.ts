export class C { abstract x: number = 1; }
