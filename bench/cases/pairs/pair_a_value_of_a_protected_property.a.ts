export class C { protected x = 1; }
