export class C { private constructor(public [] = f); }
