class Base {
  static part: { size: number } = { size: 1 };
}
export class Derived extends Base {}
export type Part = typeof Base.part;
