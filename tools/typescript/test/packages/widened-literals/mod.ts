const EL_ID = "x";
const COUNT = 1;
const ON = true;
const COPY = EL_ID;
export const o = { id: EL_ID, count: COUNT, on: ON };
export const list = [EL_ID];
export const copy = EL_ID;
export const copied = { a: COPY };
export let changing = EL_ID;
export class C { id = EL_ID; readonly fixed = EL_ID; }
export const shorthand = { EL_ID };
const KEPT: "x" = "x";
export const kept = { id: KEPT };
const FROZEN = "x" as const;
export const frozen = { id: FROZEN };
export namespace Blocks { export const ID = "x"; }
export namespace Blocks { export const o = { id: ID }; export namespace Inner { export let changing = ID; } }
export function parameter(id = EL_ID): void {}
export default { id: EL_ID };
