export class C { private 1(a) {} private 1() { return 1; } }
