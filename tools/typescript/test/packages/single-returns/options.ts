/** Where a return names it, it is public. */
export interface Options {
  deep: boolean;
}
