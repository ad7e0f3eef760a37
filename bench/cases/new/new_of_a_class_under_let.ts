export let a = new C(1);
