import e, * as o from "@x/y"; import e, * as o from "@x/y";
