export const a = 1;
export default function hidden() {
  return a;
}
