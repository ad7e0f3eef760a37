export async function g() { return "a" as string; }
