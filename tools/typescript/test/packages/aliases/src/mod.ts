import type { Hash } from "#hash";
import type { Inner } from "#inner/inner";
import type { Base } from "@/container/base";
import { exact } from "@/exact";
import type { User } from "user.model";
import { plain } from "plain/index";
export class All implements Base {
  hash?: Hash;
  inner?: Inner;
  user?: User;
  size: number = 0;
}
export const made: typeof exact = exact, other: typeof plain = plain;
