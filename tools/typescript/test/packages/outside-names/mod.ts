import { EventEmitter } from "node:events";
import type { Schema } from "zod";
import "side-effect";
export class Bus extends EventEmitter {}
export function check(schema: Schema): boolean {
  return true;
}
