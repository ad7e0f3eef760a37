export class C { private abstract m() {} }
