export namespace Root {
  export class Inner {
    depth = 1;
  }
}
