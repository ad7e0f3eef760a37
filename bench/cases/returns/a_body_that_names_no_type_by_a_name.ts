export function f() { return a; } export const e = function () { return a; }; export const a = () => { return a; }; export class C { m() { return a; } static s() { return a; } get g() { return a; } }
