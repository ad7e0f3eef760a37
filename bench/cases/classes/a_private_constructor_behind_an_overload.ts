export class R extends B { private constructor(a: string); private constructor(a: any) { super(a); } }
