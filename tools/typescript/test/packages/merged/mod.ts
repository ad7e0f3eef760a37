export interface Options {
  a: number;
}
export interface Options {
  b: string;
}
export function Options(): Options {
  return { a: 1, b: "" };
}
export class Tree {
  left?: Tree.Node;
}
export namespace Tree {
  export interface Node {
    value: number;
  }
}
export enum Mode {
  On,
}
export namespace Mode {
  export function parse(text: string): Mode {
    return Mode.On;
  }
}
