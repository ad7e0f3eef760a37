import { outside } from "node:outside";
import { told } from "./told.ts";

const key: string = read();
function read(): string {
  return "a";
}
export const length = told.length + 1, negative = !told;
export const empty = [];
export const several = [{ a: 1 }, { b: 2 }];
export const copied = { ...told };
export const taken = [...outside];
export const either = told ? told : [told];
export let unknown = outside;
export const known = outside;
export const computed = { [key]: 1 };
export const later = async () => told;
export const asserted = told!;
export class Holder {
  first = told[0];
}
export const isText = (it: unknown) => typeof it === "string";
export const isFirst = (it: { kind: "a" } | { kind: "b" }) => (it.kind === "a");
export const narrowed = outside.it ? outside.it : 0;
export const nested = (it: string | undefined) => it === undefined ? "" : it ? it : "empty";
