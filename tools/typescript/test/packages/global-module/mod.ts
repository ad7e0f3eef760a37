export const name: string = "a";
declare global {
  interface Window {
    name: string;
  }
}
