export * as shapes from "./shapes.ts";
import * as tools from "./tools.ts";
export const tool: tools.Tool = tools.make();
