export class C { 2n; 2n = f(); }
