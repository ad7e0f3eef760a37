export class A { constructor(static a: number) {} }
