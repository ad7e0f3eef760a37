export class C { accessor [k]; accessor [k] = [1]; }
