export class C { private readonly x: number = 1; }
