export class C { a = "t"; readonly b = "t"; c = true; d = f as string; readonly e = 2n; f = `t`; g = null; }
