export class A { public private a: number = 1; }
