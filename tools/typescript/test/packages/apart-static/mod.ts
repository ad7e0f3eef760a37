class Base {
  static part: { size: number } = { size: 1 };
}
class Derived extends Base {}
export type Part = typeof Derived.part;
