export class C { x!: number = 1; }
