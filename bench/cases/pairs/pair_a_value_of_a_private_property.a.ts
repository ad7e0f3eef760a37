export class C { private x = 1; }
