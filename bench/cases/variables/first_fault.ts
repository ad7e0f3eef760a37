export let a, b = 1, c; export var d, e;
