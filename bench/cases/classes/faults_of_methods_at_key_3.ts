export class C { 2n() { return f(); } }
