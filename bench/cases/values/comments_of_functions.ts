export function h() { throw 1; } export function f() { throw 1; }
