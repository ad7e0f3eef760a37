const base = 4;
export const enum Level {
  Low = base,
}
