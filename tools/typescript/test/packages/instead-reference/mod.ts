import type { GlobalSettings } from "./globals.d.ts";
export const settings: GlobalSettings = read();
declare function read(): GlobalSettings;
