export class C { override x: number = 1; }
