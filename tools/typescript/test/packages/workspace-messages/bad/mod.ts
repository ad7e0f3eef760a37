import { good } from "@test/good";
export function bad() {
  return good;
}
