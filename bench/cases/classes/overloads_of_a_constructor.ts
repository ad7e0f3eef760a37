export class C extends B { constructor(a: string); constructor(a: number); constructor(a, ...b, [c] = 1) { super(a); } }
