export interface Shape<out T extends string = "d"> extends Base<T> { (x: string): number; new (x: string): number; [k: string]: number; m(x: number): string; readonly p?: T; }
type All<out T extends string = "d"> = { +readonly [K in string]?: T } | (T extends infer U ? string : never) | [a: string, ...b: number[]] | `a${string}` | import("./b").n.Name;
const enum Size { S = "x", "L" }
