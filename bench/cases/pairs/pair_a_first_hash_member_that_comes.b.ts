export class C { #a; x: number; }
