export class C { private [k]: number; private [k] = f(); }
