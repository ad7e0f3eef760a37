export class A { async a = 1; }
