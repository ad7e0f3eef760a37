export class C { private "a b": number; private "a b" = f(); }
