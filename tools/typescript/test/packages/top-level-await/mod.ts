declare function f(): Promise<string>;
export const asserted = await <string>"a";
export const negative: number = await -1;
export const matched: boolean = await /a</.test("a");
export const later: string = await
  f();
export const keys = { await: "a" };
export type Waits = (await: boolean) => void;
export interface Signatures {
  await(await: boolean): void;
}
export function waits(await: boolean): boolean {
  return await;
}
