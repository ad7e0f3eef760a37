export function f(a: T) { a?.(); o.f?.(1, ...a); a?.()?.b; }
