/** What there is to choose. */
export interface Options {
  size?: number;
}
