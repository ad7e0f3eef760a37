export let a = x as Name;
