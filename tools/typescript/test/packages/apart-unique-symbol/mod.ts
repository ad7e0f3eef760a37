export let mark = Symbol("mark");
