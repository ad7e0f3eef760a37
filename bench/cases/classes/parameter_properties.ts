export class P { constructor(private a: string, readonly b = 1) {} }
