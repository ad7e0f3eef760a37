export default class {
  #secret = 1;
  private constructor() {}
  static create(): number {
    return 1;
  }
}
