import d, { a, b as c } from "@x/y"; import * as n from "@x/y"; import e, * as o from "@x/y"; import f from "@x/y";
