const start = 1;
export let count = start;
export class Counter {
  count = start;
}
