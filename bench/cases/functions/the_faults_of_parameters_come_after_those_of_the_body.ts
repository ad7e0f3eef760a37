export function g(a, b = (c) => f(), ...d) { return f(); }
