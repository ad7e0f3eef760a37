export function f0(a = b) {} export function f1(a = [f() as string]) {} export function f2(a = () => 1) {} export function f3(a = {}) {} export function f4(a = b as () => void) {}
