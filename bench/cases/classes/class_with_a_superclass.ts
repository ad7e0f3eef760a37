export class D extends B { constructor(a: string) { super(a, ...b); this.x = 1; } }
