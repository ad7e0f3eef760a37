declare const flag: boolean;
declare const text: string;
enum E { A, B }
// What a constant, a variable or a member has is wider; what a function returns is so of one literal alone.
export const constant = flag ? 1 : 2;
export let variable = flag ? 1 : "a";
export const both = flag ? true : false;
export const nested = flag ? (flag ? 1 : 2) : null;
export class C { readonly a = flag ? 1 : 2; static readonly s = flag ? "x" : "y"; }
export const returned = () => flag ? 1 : 2;
export const inParentheses = () => (flag ? 1 : 2);
export const equal = () => flag ? "a" : "a";
export const either = () => flag ? true : false;
export const maybe = () => flag ? 1 : undefined;
export const several = () => flag ? 1 : flag ? "x" : true;
export const taken = () => flag ? 1 : +text;
export const object = () => ({ a: flag ? 1 : 2 });
export const list = () => [flag ? 1 : 2];
export const inner = () => () => flag ? 1 : 2;
export const template = () => flag ? `a` : 1;
export const frozen = Object.freeze({ a: flag ? 1 : 2, b: [flag ? 1 : 2], c: { d: flag ? 1 : 2 } });
export const exact = { a: flag ? 1 : 2 } as const;
export const tuple = [flag ? 1 : 2] as const;
export const member = flag ? E.A : E.B;
// The elements of a text.
export const letters = [..."abc"];
export const more = [1, ...("abc"), ...[2]];
export const parts = [...`a${text}`];
export const asked = () => [..."abc"];
// Literals of constants without a written type.
const ID = "x", COUNT = 1, ON = true, COPY = ID;
export const ids = { id: ID, count: COUNT, on: ON, copy: COPY };
export let changing = ID;
export const kept = COPY;
export class D { static readonly ID = "x"; id = D.ID; readonly fixed = ID; }
export const ofClass = { id: D.ID };
export namespace N { export const ID = "n"; }
export const ofNamespace = [N.ID];
