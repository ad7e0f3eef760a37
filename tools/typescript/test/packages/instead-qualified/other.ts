export interface Other {
  b: number;
}
