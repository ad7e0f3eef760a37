export function f() { if (a) return; f(); }
