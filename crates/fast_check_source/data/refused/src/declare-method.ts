export class A { declare m(): void {} }
