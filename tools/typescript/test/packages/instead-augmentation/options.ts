export interface Options {
  name: string;
}
export interface Options {
  added: number;
}
