import "./effects.ts";
export const f: number = 1;
