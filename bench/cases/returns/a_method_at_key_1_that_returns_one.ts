export class C { "a b"() { return 1; } }
