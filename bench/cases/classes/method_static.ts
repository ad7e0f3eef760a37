export class C { static m(): void {} }
