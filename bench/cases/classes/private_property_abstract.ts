export class C { private abstract x: number = 1; }
