export function f(a) {} import x = require("y"); export = x; export const z;
