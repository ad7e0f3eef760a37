declare module "./options.ts" {
  interface Options {
    added: number;
  }
}
export {};
