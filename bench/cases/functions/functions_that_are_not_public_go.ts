function h(a, [b]) { return f(); } export function f() { h(); } export function g(a) { return 1; }
