export class C extends B { constructor() { super(f()); } }
