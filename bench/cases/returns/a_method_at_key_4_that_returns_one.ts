export class C { [k]() { return 1; } }
