export class C { private static m() {} }
