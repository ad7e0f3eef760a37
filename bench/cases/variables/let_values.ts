export let l0 = "a", l1 = true, l2 = null, l3 = 1.5, l4 = 10n, l5 = /a+/g;
