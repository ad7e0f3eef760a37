export class C { [k: string]: number; static readonly [k: number]: any; }
