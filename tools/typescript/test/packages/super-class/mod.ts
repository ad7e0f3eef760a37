export class Dialog extends mixin(class {}) {
  open(): void {}
}
function mixin<T>(base: T): T {
  return base;
}
