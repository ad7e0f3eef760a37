export class C { [k]() { return f(); } }
