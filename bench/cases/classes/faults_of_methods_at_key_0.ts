export class C { m() { return f(); } }
