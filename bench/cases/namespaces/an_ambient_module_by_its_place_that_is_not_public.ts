declare module "x" {}
