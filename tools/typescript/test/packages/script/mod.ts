interface Alone {
  a: number;
}
const value = 1;
