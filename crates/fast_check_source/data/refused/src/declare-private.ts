export class A { declare #a: number; }
