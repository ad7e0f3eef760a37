declare const dec: any;
export class A { @dec constructor() {} }
