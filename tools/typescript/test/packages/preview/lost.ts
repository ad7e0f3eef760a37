import type { Options } from "./options.ts";
declare namespace parts {
  export interface Part {}
}
export interface Lost {
  options: Options;
  gone: parts.Gone;
}
export type Found = Lost | Options;
