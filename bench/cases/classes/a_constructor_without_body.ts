export class C { constructor(a: string); constructor(a: any) {} }
