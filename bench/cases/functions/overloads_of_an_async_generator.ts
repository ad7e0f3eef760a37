export function o(x: string): void; export async function* o() { yield 1; }
