export class C { 2n() { return 1; } }
