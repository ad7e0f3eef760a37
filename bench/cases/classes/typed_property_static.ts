export class C { static x: number = 1; }
