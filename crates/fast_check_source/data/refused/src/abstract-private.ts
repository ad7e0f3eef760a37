export abstract class A { abstract #a: number; }
