export function o(x: string): void; export function o(x, ...y): void { return 1; }
