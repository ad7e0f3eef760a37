export class C { protected constructor(a: string, b = 1) {} }
