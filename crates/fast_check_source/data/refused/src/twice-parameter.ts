export class A { constructor(public public a: number) {} }
