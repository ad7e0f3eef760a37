export class C { set a(v: string) { return 1; } set b(v = 1) {} set c({ d }: any) {} }
