export async function f(): Promise<void> { for await (;;) break; }
