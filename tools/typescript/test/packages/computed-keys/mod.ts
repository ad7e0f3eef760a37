const key = Symbol("key");
export const name = "title";
export class Keyed {
  [key] = 1;
  [name](): void {}
  ["plain"] = "a";
}
export interface Has {
  [key]: string;
}
