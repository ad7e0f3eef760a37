export class C { a: number; get #m() {} }
