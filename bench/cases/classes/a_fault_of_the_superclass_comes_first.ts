export class C extends f() { x; }
