import d, { a, b as c } from "@x/y";
