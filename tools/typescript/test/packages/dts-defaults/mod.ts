export const flag: boolean = read();
function read(): boolean {
  return true;
}
export const other: number = flag ? 1 : 2;
export class Numbers {
  1(a: string): void;
  1.0(a: number): void;
  "1"(_a: unknown): void {}
  0x10(a: string): void;
  16(_a: unknown): void {}
}
export const above = (it: number) => it > 1;
export const isTrue = (it: boolean) => it === true;
export const isEqual = flag ? flag === other > 1 : false;
export default flag ? 1 : 2;
