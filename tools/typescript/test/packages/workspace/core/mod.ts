export interface Item {
  id: number;
}
export function make(): Item {
  return { id: next() };
}
function next(): number {
  return 1;
}
