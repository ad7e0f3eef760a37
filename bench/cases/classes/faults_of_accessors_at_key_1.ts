export class C { accessor "a b"; accessor "a b" = [1]; }
