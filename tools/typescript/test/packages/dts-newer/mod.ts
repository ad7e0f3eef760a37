const key: string = "dynamic";
export enum Texts { A = `a`, B = `b${1}`, C = `${A}x`, D = A + "c" }
export const enum Constant { A = `a`, B = `${A}b` }
export class Property { [key]: number = 1; }
export class Methods { [key](a: string): number { return 1; } }
export class Overloads { [key](a: string): number; [key](a: number): number; [key](a: unknown): number { return 1; } }
export class Accessors { get [key](): number { return 1; } set [key](it: number) {} }
export class Static { static [key]: number = 1; static [key](a: string): number { return 1; } }
export class Optional { protected [key]?: boolean; }
