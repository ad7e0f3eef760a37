export const o = { f: function () { throw 1; }, get g() {}, h: function () { throw 1; } };
