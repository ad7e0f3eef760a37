export class C extends B { constructor() { { super(1); } (super(1)); return super(1); } }
