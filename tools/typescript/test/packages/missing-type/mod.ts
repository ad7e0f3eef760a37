export let count;
export const made = create();
export class Box {
  size = create();
}
export function take(value, other = create()): void {}
function create() {
  return 1;
}
