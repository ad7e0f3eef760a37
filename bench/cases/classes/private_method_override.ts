export class C { private override m() {} }
