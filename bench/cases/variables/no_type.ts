export let z;
