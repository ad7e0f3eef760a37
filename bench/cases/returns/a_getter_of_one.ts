export class V { get v() { return 1; } }
