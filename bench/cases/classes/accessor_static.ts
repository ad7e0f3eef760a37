export class C { static accessor x: number; }
