export class C {} export class D extends C {}
