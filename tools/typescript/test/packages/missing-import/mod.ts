export { gone } from "./gone.ts";
import { also } from "./also";
export const a: typeof also = 1;
