export class C { [k]: number; public [k]: number; protected [k]: number; [k] = [1]; readonly [k] = 1; }
