const base = 4;
const hidden = 5;
enum Level { Low = base, High = hidden }
enum Level { Top = 9 }
namespace Level {
  export type Name = "low" | "high";
  export function parse(name: Name): Level { return Level.Low; }
  type Unasked = 1;
}
enum Alone { One = 1, "two words" = 2 }
export function isLow(level: Level.Low | Level.Top, name: Level.Name): level is Level.Low { return true; }
export type One = Alone.One;
