declare module "x" { export const a; export = b; }
