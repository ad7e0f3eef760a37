export class C { abstract get x(); }
