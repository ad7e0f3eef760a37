export class C { get a() { return f(); } get b() { throw 1; } get c() {} static get d() {} }
