export type Extra = "extra";
