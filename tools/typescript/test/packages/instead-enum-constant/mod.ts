export enum Level {
  Low = 4,
  High = Low << 1,
}
