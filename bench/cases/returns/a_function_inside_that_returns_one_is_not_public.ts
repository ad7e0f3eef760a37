function h() { return 1; } export function f() {}
