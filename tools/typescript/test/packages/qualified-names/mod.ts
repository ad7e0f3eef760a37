import * as api from "./api.ts";
export function first(of: api.List.Node): api.Kind {
  return of.kind;
}
export const limit: typeof api.limits.upper = 1;
