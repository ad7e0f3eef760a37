export class C { declare x = [1]; }
