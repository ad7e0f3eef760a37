export class C { private override x: number = 1; }
