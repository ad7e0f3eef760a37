export declare module "x" {}
