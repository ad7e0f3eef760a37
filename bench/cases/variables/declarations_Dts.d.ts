export let a; export const b = "b";
