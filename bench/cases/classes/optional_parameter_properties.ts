export class C { constructor(public a?: string, private b?, protected readonly c: number = 1, public override d = "t") {} }
