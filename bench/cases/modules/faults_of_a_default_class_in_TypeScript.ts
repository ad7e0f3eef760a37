export default class C extends f() { x; m(a) { return f(); } }
