export class C { private 1: number; private 1 = f(); }
