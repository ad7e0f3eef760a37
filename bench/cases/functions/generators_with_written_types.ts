export function* g(): Generator<number> { yield 1; } export async function* h(): AsyncGenerator {}
