export class A { declare [key: string]: number; }
