export class A {
  constructor(private made: number) {}
  private make(): void {}
  private static make(): void {}
  private static made = 1;
  private get a(): number { return 1; }
  private static b = 1;
  private b = 1;
  private over(a: number): void;
  private over(a: string): void;
  private over(a: unknown): void {}
  static over(): void {}
  private static s(): void {}
  s: number = 1;
}
export abstract class B {
  private static c: string = "";
  private c?: string;
}
