export const sub: string = "a";
