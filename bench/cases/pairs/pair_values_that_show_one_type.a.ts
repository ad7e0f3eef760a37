export let v = 1;
