export class A {
  opt() { return { me: this }; }
  list() { return [this]; }
  self() { return this; }
  call() { return () => this; }
  inner = { me: this };
}
export class B { more() { return Math.max(1); } }
