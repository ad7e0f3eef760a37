export class A { constructor: number = 1; }
