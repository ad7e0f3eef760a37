// A value stands for no type.
export function Promise(): void {}
export const RegExp: number = 1;
export async function later() {}
export const pattern = /a/;
export class Fits<T> { async later(it: T) {} }
