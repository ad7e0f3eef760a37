export class C { abstract x = [1]; }
