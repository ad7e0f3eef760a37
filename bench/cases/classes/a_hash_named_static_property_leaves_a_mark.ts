export class C { a: number; static #x = f(); }
