declare function load(): Promise<number>;
export async function value() { return await load(); }
export async function several() { if (load) return 1; return "a"; }
export const arrow = async () => load();
export class A { async method() { return load(); } property = async (a: number) => [load()]; static async nothing() { throw 1; } }
export async function never() { throw new Error(); }
export const thrown = async () => { throw 1; };
export async function empty() { return; }
export default async () => load();
