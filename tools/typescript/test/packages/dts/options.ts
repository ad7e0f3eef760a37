export enum Level { Low, High = "high" }
export const base = -2;
export interface Options {
  level?: Level;
}
export default function (level = Level.Low, options: Options): Options {
  return { ...options, level };
}
