export class C extends B { constructor() { super(1, 2); } }
