export class A { static constructor() {} }
