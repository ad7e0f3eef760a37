export class C { private m() {} private "m"() {} private static m() {} private get m() { return 1; } private n?() {} }
