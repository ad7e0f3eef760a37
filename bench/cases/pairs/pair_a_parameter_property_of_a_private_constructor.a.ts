export class C { private constructor(private a: number) {} }
