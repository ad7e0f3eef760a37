export class C { private accessor "a b": number; private accessor "a b" = f(); }
