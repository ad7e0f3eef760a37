import type { Options } from "./options.ts";

// The types of these are read off their only returns.
export function answer() {
  return 42;
}
export class Reader {
  get options() {
    return { deep: true } as Options;
  }
  async name() {
    return "reader";
  }
}
export const greet = (name: string) => {
  return `hello ${name}`;
};

// Of these no single return says the type.
export function written(): number {
  return 1;
}
export const short = () => "a value, and no body";
export function nothing() {
  return;
}
function hidden() {
  return 1;
}
