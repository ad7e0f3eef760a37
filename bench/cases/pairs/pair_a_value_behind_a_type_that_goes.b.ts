export let x: number;
