export class C { protected x: number; }
