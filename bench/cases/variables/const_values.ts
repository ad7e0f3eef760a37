export const c0 = "a", c1 = true, c2 = null, c3 = 1.5, c4 = 10n, c5 = /a+/g;
