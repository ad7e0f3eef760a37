export class C { a: number; #x: number; }
