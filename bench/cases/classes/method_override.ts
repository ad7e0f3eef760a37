export class C { override m(): void {} }
