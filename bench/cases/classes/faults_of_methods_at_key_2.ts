export class C { 1() { return f(); } }
