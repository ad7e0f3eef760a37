export class C extends B { constructor() { f(); super(); throw 1; super(1, ...f, z); } }
