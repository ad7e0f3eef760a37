export class C { constructor(public a: string) {} #x; }
