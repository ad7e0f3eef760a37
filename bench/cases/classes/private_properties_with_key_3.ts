export class C { private 2n: number; private 2n = f(); }
