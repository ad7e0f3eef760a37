// A return that asserts a type of its own body names no type: the skeleton could not say it.
type Local = "another one";
const x: unknown = 1;
export function alias() { type Local = { a: 1 }; return x as Local; }
export function inner() { interface Local { a: 1 } return <Local>x; }
export const arrow = () => { class Local { a = 1; } return x as Local[]; };
export class Class {
  method() { enum Local { A } return x as Map<string, Local>; }
  get value() { namespace Space { export type T = 1; } return x as Space.T; }
}
export function queried() { const local = 1; return x as typeof local; }
export function outer() { const unrelated = 1; return x as Local; }
export function parameter<T>(of: T) { return x as T | typeof of; }
export function inferred() { type U = 1; return x as (Local extends infer U ? U : never); }
export function keyed() { const key = "a"; return x as { [key]: number }; }
