async function f(a = 1) { return; } function g() { return 1; }
