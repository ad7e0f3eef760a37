export const a = 1; using x = f(), y = f(); export function g() {}
