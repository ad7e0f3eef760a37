export namespace M { export interface I { a: string } }
export class K { private q: number = 1; static s: { t: string } = { t: "" }; }
export function g(): void {}
