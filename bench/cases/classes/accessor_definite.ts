export class C { accessor x!: number; }
