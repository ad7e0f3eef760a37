export class A { accessor m(): void {} }
