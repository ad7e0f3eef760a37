declare function load(): string;
export const f = (a: string = load()) => a;
export const g = (a = "x") => [a];
export const o = { f: (a: string = load()) => ({ a }) };
export class C { m = (a: string = load()) => a; static s = (a: number = 1) => () => a; }
export const pattern = ({ a = 1 }: { a?: number }) => a;
export const list = ([a = 1]: [number?]) => a;
export function second(a: string = load(), b = a): void {}
export const later = async (a: string = load()) => a;
// These stand as they are.
export const plain = (a?: string) => a;
export const typed = (a: string = load()): string => a;
export const other = (a: string = load()) => 1;
export default (a: string = load()) => a;
export const asserted = (a: string = load()) => a as string;
export const sure = (a: string = load()) => a!;
export const assertedPattern = ({ a }: { a: 1 }) => a as number;
export const inner = (call = (it: string = "") => 1) => 1;
