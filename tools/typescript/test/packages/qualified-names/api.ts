export namespace List {
  export interface Node {
    kind: Kind;
  }
  export interface Unused {}
}
export type Kind = "a" | "b";
export const limits: { upper: number; lower: number } = { upper: 1, lower: 0 };
export const unused = 1;
