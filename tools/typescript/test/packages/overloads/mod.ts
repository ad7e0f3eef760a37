export function parse(text: string): object;
export function parse(text: string, strict: boolean): object | null;
export function parse(text: string, strict?: boolean, depth = hidden): object | null {
  return strict ? null : {};
}
const hidden = Math.random();
export class Reader {
  read(): string;
  read(size: number): Uint8Array;
  read(size?: number): string | Uint8Array {
    return "";
  }
  constructor(path: string);
  constructor(handle: number);
  constructor(from: string | number) {}
}
