export const v = new C(function () { throw 1; }); export const w = new G(function () { throw 1; }); export const x = new C(function () { throw 1; }, f());
