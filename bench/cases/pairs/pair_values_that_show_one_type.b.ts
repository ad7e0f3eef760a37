export let v = 2;
