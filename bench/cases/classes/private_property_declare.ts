export class C { declare private x: number = 1; }
