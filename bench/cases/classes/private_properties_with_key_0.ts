export class C { private m: number; private m = f(); }
