export class Named {
  "constructor"(public value: string) {}
}
export class Heir extends Named {
  'constructor'(value: string);
  'constructor'(value: string, size?: number) {
    super(value);
  }
  method(): void {}
}
