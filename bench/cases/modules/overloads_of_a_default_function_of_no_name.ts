export default function (a: string): void; export default function (a, ...b) { return a; }
