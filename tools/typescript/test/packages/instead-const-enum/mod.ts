export const enum Level {
  Low = 4,
}
