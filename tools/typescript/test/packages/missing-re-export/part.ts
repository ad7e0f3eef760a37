export * from "./behind.ts";
export const e: number = 1;
