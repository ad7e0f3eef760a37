export default function f(a) { return 1; }
