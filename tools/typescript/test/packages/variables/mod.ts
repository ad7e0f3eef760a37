export const text = "a", number = 1.5, big = 10n, truth = true, nothing = null, pattern = /a+/g;
export let mutable = "a", counted = 1;
export var old: string | undefined;
export const template = `one`, filled = `one ${1}`;
export const key = Symbol("key");
export const pair: [number, string] = [1, "a"];
export const asserted = read() as { name: string };
export let definite!: number;
const hidden = read();
const shown = 1;
export { shown as renamed };
function read(): unknown {
  return hidden;
}
