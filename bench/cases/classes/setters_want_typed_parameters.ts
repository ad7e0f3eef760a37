export class C { set x(v) {} }
