declare module "x" {} declare global {}
