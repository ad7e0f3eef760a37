export class C { private accessor [k]: number; private accessor [k] = f(); }
