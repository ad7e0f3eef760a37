export class C { private x: number; }
