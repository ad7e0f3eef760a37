export class Q { constructor(public a = []) {} }
