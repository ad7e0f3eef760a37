export class C { private m?() {} }
