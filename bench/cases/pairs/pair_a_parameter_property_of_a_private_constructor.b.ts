export class C { private constructor(a: number) {} }
