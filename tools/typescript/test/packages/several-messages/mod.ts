export * from "./shapes.ts";
export function main() {
  return run();
}
function run() {
  return 1;
}
