export function f0(a: string = f()) {} export function f1(a: string = 1) {}
