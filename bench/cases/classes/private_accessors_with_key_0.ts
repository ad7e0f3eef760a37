export class C { private accessor m: number; private accessor m = f(); }
