export class C { "a b": number; public "a b": number; protected "a b": number; "a b" = [1]; readonly "a b" = 1; }
