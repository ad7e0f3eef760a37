export function handler(): void {}
handler.title = "a" as string;
