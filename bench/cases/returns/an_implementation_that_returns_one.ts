export function o(a: string): void; export function o(a) { return 1; }
