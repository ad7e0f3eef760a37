export class C { static { throw 1; } ; private x: number; private constructor(); }
