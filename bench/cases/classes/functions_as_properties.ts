export class C { a = (n: number) => n; b = function (): void { throw 1; }; c = () => 1; }
