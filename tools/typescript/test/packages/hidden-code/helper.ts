export function helper(a, b) {
  return a == b;
}
