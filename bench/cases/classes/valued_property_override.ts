export class C { override x = [1]; }
