export class Promise<T> { it?: T; }
export type RegExp = string;
export async function later() {}
export const pattern = /a/;
export class A { async later() {} pattern = /a/; }
export namespace N { export async function inner(): globalThis.Promise<void> {} }
export function parameter<RegExp>(it: RegExp, pattern = /a/): void {}
