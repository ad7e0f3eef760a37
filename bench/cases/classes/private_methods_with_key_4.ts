export class C { private [k](a) {} private [k]() { return 1; } }
