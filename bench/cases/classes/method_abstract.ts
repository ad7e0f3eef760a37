export class C { abstract m(): void {} }
