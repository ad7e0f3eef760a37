export const é = "ü"; export let z = 1;
