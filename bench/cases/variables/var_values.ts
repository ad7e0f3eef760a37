export var v0 = "a", v1 = true, v2 = null, v3 = 1.5, v4 = 10n, v5 = /a+/g;
