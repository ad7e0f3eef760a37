export class C { "a b"() { return f(); } }
