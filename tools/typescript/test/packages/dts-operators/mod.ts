declare const told: string[], large: bigint;

export const nothing = void 0;
export let later = void told;
export const kind = typeof told;
export let kinds = [typeof told];
export let isEmpty = !told;
export const plus = +told, one = +1, again = +(1), inverse = ~1, minus = -(1 + 2), twice = - -1;
export let up = +1, down = -+"1", many = [+1, ~2];
export const sum = +told * 2, text = typeof told + "s", said = typeof told + 1;
export const several = [void 0, 1];
export const table = { nothing: void 0, kind: typeof told, isEmpty: !told, plus: +told };
export const fixed = [void 0, +"2", +2, typeof told] as const;
export const frozen = Object.freeze({ nothing: void 0, one: +1 });
export const picked = told ? void 0 : null;
export const made = () => void told;

export class Holder {
  nothing = void 0;
  readonly none = void 0;
  isEmpty = !told;
  readonly kind = typeof told;
  plus = +told;
  readonly one = +1;
}

export function set(it = void 0, isEmpty = !told, kind = typeof told): void {
  console.log(it, isEmpty, kind, large);
}
