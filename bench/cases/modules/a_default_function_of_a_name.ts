export default function f(a: string, b = 1): string { return f(); }
