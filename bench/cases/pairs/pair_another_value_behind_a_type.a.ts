export let x: number = 1;
