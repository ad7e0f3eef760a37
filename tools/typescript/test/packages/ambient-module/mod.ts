export const name: string = "a";
declare module "other" {
  export const x: number;
}
