export class C { override accessor x: number; }
