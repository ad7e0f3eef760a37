export const a; declare global {} export function b(c) {} declare module "x" {}
