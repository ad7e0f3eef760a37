export class C { m?(): void {} }
