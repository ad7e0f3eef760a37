export class C { x: number; }
