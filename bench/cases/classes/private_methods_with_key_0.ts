export class C { private m(a) {} private m() { return 1; } }
