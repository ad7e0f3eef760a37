export class A { async get a(): number { return 1; } }
