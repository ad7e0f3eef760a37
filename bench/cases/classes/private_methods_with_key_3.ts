export class C { private 2n(a) {} private 2n() { return 1; } }
