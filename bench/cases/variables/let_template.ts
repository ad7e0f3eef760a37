export let a = `t`;
