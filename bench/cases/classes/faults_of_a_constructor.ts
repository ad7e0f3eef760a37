export class C { constructor(a, b = f(), { c }) {} }
