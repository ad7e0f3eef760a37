export class A { readonly constructor() {} }
