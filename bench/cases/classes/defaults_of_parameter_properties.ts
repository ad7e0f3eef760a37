export class C { constructor(protected readonly a: number = 1, override b = "t", private c = 1, @d readonly d = "t", public e?: string) {} }
