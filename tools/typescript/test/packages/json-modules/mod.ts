import data from "./data.json";
export const names: string[] = data.names;
export type Data = typeof data;
