export class A { async constructor() {} }
