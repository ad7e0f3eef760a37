export class C { accessor a = "t"; accessor b = f as string; }
