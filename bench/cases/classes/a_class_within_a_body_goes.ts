export function f() { class C extends f() { x = f(); } }
