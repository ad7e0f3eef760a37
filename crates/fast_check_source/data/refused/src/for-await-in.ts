export async function f(b: object): Promise<void> { for await (const a in b) a; }
