export const checked = { a: 1 } satisfies object;
export class Cell {
  accessor value = 1;
}
export function same<const T>(value: T): T {
  return value;
}
