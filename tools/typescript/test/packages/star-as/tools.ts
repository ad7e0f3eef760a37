export interface Tool {
  name: string;
}
export interface Other {}
export function make(): Tool {
  return { name: "" };
}
