export class C { private x: string; }
