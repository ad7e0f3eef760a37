export default function f(a: string): void; export default function f(a, ...b) { return a; }
