export class C { private constructor(b, c: T) {} }
