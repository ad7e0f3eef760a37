export const handler = (): void => {};
handler.title = "a" as string;
