export class C { a = () => f(); b = function () { throw 1; }; c = function () { return 1; }; d = { z }; e = [() => f()]; }
