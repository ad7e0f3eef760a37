export const list = [1, "a", true];
export const object = { name: "a", nested: { count: 1 }, list, call: (n: number): number => n };
export const frozen = Object.freeze({ a: 1 });
export const exact = { kind: "circle", sides: 0 } as const;
export const minus = -1;
export const choice = 1 > 2 ? "a" : "b";
export const twice = (n = 1) => n as number;
export const task = async (name: string): Promise<void> => {};
export class Empty {}
export const made = new Empty();
