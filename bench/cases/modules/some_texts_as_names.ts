import { "a b" as c, "d" as d, default as e } from "@x/y";
