export function plain(a: string, b = 1, c?: boolean, ...rest: string[]): number {
  return rest.length;
}
export function nothing(a: number) {
  console.log(a);
}
export async function later() {
  await Promise.resolve();
}
export function destructured({ a, b }: { a: number; b: string }, [c]: number[] = []): void {}
export function early(a = 1, b: string): void {}
export function* numbers(): Generator<number> {
  yield 1;
}
export function generic<T extends object, U = T>(value: T): value is T & U {
  return true;
}
export function fails(message: string): never {
  throw new Error(message);
}
export function checks(value: unknown): asserts value is string {}
function hidden() {
  return plain("a");
}
