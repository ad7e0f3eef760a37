export * from "@x/y"; export const x: number = 1;
