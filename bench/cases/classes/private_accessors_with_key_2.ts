export class C { private accessor 1: number; private accessor 1 = f(); }
