export class A { constructor(declare a: number) {} }
