export default function f(a, { c }) { return f(); }
