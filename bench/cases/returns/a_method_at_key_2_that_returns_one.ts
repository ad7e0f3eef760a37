export class C { 1() { return 1; } }
