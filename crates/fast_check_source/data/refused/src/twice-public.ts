export class A { public public a: number = 1; }
