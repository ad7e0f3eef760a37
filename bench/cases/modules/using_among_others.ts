export const a; using x = f(), y = f(); export function f(b) {}
