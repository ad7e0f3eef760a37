export let x: number = f();
