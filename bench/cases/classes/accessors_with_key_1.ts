export class C { accessor "a b": number; public accessor "a b": number; protected accessor "a b": number; accessor "a b" = 1; }
