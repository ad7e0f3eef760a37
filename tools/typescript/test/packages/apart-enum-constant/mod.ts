const base = 4;
export enum Level {
  Low = base,
  High = base << 1,
}
