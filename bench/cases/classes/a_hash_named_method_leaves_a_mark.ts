export class C { a: number; #m() {} }
