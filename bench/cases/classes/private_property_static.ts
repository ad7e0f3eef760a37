export class C { private static x: number = 1; }
