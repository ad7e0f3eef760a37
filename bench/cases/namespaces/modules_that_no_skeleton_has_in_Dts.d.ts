declare global {} declare module "x" {}
