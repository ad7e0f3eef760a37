export class A { accessor a?: number; }
