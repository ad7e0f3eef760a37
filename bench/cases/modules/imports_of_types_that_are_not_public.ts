import type { A } from "@x/y"; import type B from "@x/y"; import type * as C from "@x/y";
