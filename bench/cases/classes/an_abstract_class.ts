export abstract class C { abstract m(a: string): void; abstract n(); abstract x: number; protected abstract y: number; override o() { throw 1; } }
