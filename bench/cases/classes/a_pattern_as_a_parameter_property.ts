export class C { x; constructor(a, public [b] = f(), public { c } = f) {} y; }
