import type { Options } from "./options.ts";

export interface Made {
  options: Options;
}
export function make(): Made {
  return { options: {} };
}
