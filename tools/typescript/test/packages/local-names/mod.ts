// A return asserts a type that has a word of its own body, where the word names a member, a parameter or something else: it is no type of the body.
type Local = "another one";
namespace Space { export type T = 1; }
const x: unknown = 1;
export function member() { const a = "a"; return { a } as { a: string }; }
export function label() { const a = 1; return x as [a: number]; }
export function index() { const a = 1; return x as { [a: string]: number }; }
export function value() { const Local = 1; return x as Local; }
export function part() { interface Space { b: 1 } return x as Space.T; }
