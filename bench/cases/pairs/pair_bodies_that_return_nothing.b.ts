export function f() { f(); return; }
