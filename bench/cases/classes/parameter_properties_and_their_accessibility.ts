export class C { z: number; constructor(public a: string, protected a: string, private a: string, readonly b: number) {} }
