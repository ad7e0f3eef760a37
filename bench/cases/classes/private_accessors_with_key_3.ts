export class C { private accessor 2n: number; private accessor 2n = f(); }
