export function added() {
  return Math.random();
}
export function old() {
  return Math.random();
}
