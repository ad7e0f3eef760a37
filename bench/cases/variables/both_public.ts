export const x = "a"; export let y = 1;
