export class C { static { f(); } ; x: number; }
