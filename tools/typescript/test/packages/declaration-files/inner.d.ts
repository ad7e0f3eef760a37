export interface Inner {
  value: number;
}
export interface Unused {}
