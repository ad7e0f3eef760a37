export class C { protected x = "a"; }
