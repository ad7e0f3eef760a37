const start = 1;
export let count: number = start;
export class Counter {
  count: number = start;
}
