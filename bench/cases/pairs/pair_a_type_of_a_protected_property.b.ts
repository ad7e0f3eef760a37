export class C { protected x: string; }
