export class A { constructor<T>() {} }
