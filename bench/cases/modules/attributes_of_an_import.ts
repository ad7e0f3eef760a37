import data, { a } from "./d.json" with { type: "json" };
