export class C { private x?: number = 1; }
