export class A {
  get v() { return "a"; }
  set v(x: string | number) {}
  static get s() { return 1; }
  static set s(x: number | null) {}
  get asserted() { return 1 as 1 | 2; }
  set asserted(x: 1 | 2 | 3) {}
  get ["computed"]() { return true; }
  set ["computed"](x: boolean | null) {}
  // These have the types that they say.
  get same() { return "a"; }
  set same(x: string) {}
  get alike() { return 1 as 1 | 2; }
  set alike(x: 1 | 2) {}
  get typed(): string { return "a"; }
  set typed(x: string | number) {}
  get only() { return "a"; }
  static set only(x: number) {}
  set alone(x: number) {}
}
