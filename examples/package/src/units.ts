/** A unit of length. */
export type Unit = "mm" | "m" | "km";

const factors: Record<Unit, number> = { mm: 1000, m: 1, km: 0.001 };

/** By what a length in metres is multiplied. */
export function factor(unit: Unit): number {
  return factors[unit];
}
