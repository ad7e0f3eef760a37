export class C { x? = [1]; }
