export interface Shape { area: number }
export interface Taken { shape: Shape }
export function makeShape(): Shape { return { area: 1 }; }
export function makeTaken(): Taken { return { shape: makeShape() }; }
export function isShape(value: unknown): value is Shape { return typeof value === "object"; }
export const shapes: Shape[] = [makeShape()];
