export class Store {
  size(): number {
    return 1;
  }
}
export type Size = typeof Store.prototype.size.length;
