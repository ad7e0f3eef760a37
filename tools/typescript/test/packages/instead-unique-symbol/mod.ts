export let mark: symbol = Symbol("mark");
