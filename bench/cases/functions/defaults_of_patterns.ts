export function f0([a]: T = f()) {} export function f1({ a }: T = f()) {} export function f2([a] = b) {} export function f3({ a, c } = { a: 1 }) {} export function f4([a] = [f() as T]) {}
