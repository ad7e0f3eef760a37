export default (function (a: string): void { throw 1; });
