export { default as data, more } from "./d.json" with { type: "json" };
