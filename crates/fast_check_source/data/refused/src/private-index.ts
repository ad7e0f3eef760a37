export class A { private [key: string]: number; }
