export class C { a() {} b() { throw 1; } c() { return; } async d() { f(); } async e(): string {} f(n = 1): void {} }
