export class C { private x; }
