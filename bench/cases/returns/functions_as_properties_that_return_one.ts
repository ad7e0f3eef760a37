export class C { c = function () { return 1; }; d = [() => { return 1; }]; }
