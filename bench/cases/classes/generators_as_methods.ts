export class C { async *g(): AsyncGenerator {} }
