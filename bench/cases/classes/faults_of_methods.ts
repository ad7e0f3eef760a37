export class C { async a() { return f(); } *b(n) {} c([]) {} static d() { return f(); } }
