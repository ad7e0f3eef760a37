import { large } from "@test/large";
const start = 1;
export let count = start;
export function run(): void {
  large();
}
