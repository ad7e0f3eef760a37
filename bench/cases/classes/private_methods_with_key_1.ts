export class C { private "a b"(a) {} private "a b"() { return 1; } }
