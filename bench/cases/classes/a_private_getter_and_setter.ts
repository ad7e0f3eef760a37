export class C { private get x() { return 1; } private set x(v) {} private static set y(v) {} }
