export class C { "a b"; "a b" = f(); }
